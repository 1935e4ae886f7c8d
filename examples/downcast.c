struct A { int x; char *s; };
struct B { int x; char *s; int y; };
struct C { int x; char *s; int y; char *z; };
int main(void)
{
    struct C c;
    struct A *a;
    struct B *b;
    c.x = 1;
    c.y = 2;
    a = (struct A *)&c;
    b = (struct B *)a;
    return b->y;
}
