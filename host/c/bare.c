/*
 * The program without words on its command line, as ./dates runs it: the proved function, whose status is that of the process. It is compiled by the toolchain's own
 * compiler, which has no headers. A write that the system answers by a signal is to fail instead, so that the function can say so.
 */
enum { SIGPIPE = 13, SIGXFSZ = 25 };
void (*signal(int number, void (*act)(int)))(int);
unsigned dates_main(unsigned char *text, unsigned long length);

/* Room for the text: no page of it is touched that is not read into. */
static unsigned char text[65537];

int main(void)
{
    void (*ignore)(int) = (void (*)(int))1;
    signal(SIGPIPE, ignore);
    signal(SIGXFSZ, ignore);
    return (int)dates_main(text, sizeof text);
}
