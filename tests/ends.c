/* A program that ends in each way in which one can, by the first byte of its input: tests/checks sees that serve.c tells them apart. */
extern long read(int, void *, unsigned long), write(int, const void *, unsigned long);
extern unsigned alarm(unsigned);
extern _Noreturn void _exit(int);

int main(void)
{
    char byte = 0;
    read(0, &byte, 1);
    write(1, &byte, 1);
    switch (byte) {
    case 'e': write(2, &byte, 1); _exit(7);
    case 'r': return 5;
    case 's': *(volatile char *)0 = byte; break;
    case 'n': for (alarm(1);;) ;
    }
    return 0;
}
