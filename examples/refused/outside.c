/* A pointer that points far outside the image. */
int one;
char *volatile pointer = (char *)&one + 0x100000;
int main(void)
{
    return pointer == 0;
}
