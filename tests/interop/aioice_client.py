"""aioice's TURN client, unmodified: allocate, channel, data both ways, refresh to 0.

    aioice_client.py SERVER PORT PEER PEER-PORT [USER PASSWORD]     the peer echoes; prints the relayed address
"""
import asyncio
import os
import sys

from aioice import turn


class Receiver(asyncio.DatagramProtocol):
    def __init__(self):
        self.inbox, self.closed = asyncio.Queue(), asyncio.get_event_loop().create_future()

    def datagram_received(self, data, addr):
        self.inbox.put_nowait((data, addr))

    def connection_lost(self, exc):
        self.closed.set_result(exc)


async def main(server, peer, username=None, password=None):
    transport, receiver = await turn.create_turn_endpoint(Receiver, server_addr=server, username=username, password=password)
    for size in (1, 3, 100, 1200):
        # Letters, so that tshark takes them for no protocol of their own.
        sent = os.urandom(size).hex()[:size].encode()
        transport.sendto(sent, peer)
        assert await asyncio.wait_for(receiver.inbox.get(), 5) == (sent, peer), size
    transport.close()
    assert await asyncio.wait_for(receiver.closed, 5) is None
    print("%s %d" % transport.get_extra_info("sockname"))


asyncio.run(main((sys.argv[1], int(sys.argv[2])), (sys.argv[3], int(sys.argv[4])), *sys.argv[5:]))
