BEGIN
{
    print 1
}
