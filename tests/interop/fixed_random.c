/* Preloaded into coturn's turnutils_uclient, which is not changed otherwise.
 *
 * uclient takes its channel numbers at random from 0x4000 to 0x7FFF (RFC 5766's range; document 01 and RFC 8656 end at 0x4FFF and
 * answer 400), and adds EVEN-PORT to its Allocate when a random number is odd (document 01 doesn't know it and answers 420). Here all its
 * random numbers are even and below 0x1000, each other than the one before, so its channels stay below 0x5000, it asks for no even
 * port, and its transaction ids still differ. */
static unsigned next(void) {
    static unsigned count;
    count = (count + 2) % 0x1000;
    return count;
}

int RAND_bytes(unsigned char *to, int length) {
    unsigned number = next();
    for (int place = 0; place < length; place++)
        to[place] = place < 4 ? (unsigned char)(number >> (8 * place)) : 0;
    return 1;
}

int RAND_pseudo_bytes(unsigned char *to, int length) { return RAND_bytes(to, length); }

long random(void) { return (long)next(); }
