/* Nothing is wrong with this program: the flags of its build are. */
int zeroed;
int stored = 1;
int main(void)
{
    return zeroed + stored;
}
