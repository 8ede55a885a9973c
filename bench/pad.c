/* Takes up PAD bytes of code, so that what is linked behind it lies elsewhere. */
#define WORDS(n) #n
#define NOPS(n) __asm__ volatile("jmp 1f\n.skip " WORDS(n) ", 0x90\n1:")
void pad(void);
void pad(void) {
    NOPS(PAD);
}
