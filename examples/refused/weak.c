/* A distance to a weak symbol that no file defines. With -fPIC it is a slot that stays 0. */
extern int nowhere __attribute__((weak));
int main(void)
{
    return &nowhere != 0;
}
