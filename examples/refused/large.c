/* An image of more than 16 MiB. */
char large[17 << 20];
int main(void)
{
    return large[0];
}
