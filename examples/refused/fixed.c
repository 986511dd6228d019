/* A distance to a number, which the linker is given for a symbol. With -fPIC it is a slot that has the number. */
extern char fixed[];
int main(void)
{
    return fixed[0];
}
