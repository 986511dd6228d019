/* A pointer to what no file defines, linked all the same. */
extern int nowhere;
int *pointer = &nowhere;
int main(void)
{
    return pointer == 0;
}
