/* Thread-local data: a flat file has no place for it. */
__thread int own;
int main(void)
{
    return own;
}
