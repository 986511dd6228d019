// C++ without exceptions: constructors before main, virtual functions, templates, new and delete, destructors behind main.
#include <stdio.h>

struct Shape {
    virtual double area() const = 0;
    virtual const char *name() const { return "shape"; }
    virtual ~Shape() { printf("a shape less\n"); }
};

struct Square : Shape {
    double side;
    explicit Square(double s) : side(s) {}
    double area() const override { return side * side; }
    const char *name() const override { return "square"; }
};

struct Circle : Shape {
    double radius;
    explicit Circle(double r) : radius(r) {}
    double area() const override { return 3.14159265 * radius * radius; }
};

template <typename T, int N> T sum(T const (&all)[N])
{
    T total = T();
    for (T const &one : all)
        total += one;
    return total;
}

struct Noted {
    const char *word;
    explicit Noted(const char *w) : word(w) { printf("%s begins\n", word); }
    ~Noted() { printf("%s ends\n", word); }
};

static Noted global("global");

static Noted &local()
{
    static Noted noted("local");
    return noted;
}

int main()
{
    Shape *shapes[] = {new Square(3), new Circle(2)};
    double areas[2];
    for (int i = 0; i < 2; i++) {
        areas[i] = shapes[i]->area();
        printf("%s %.2f\n", shapes[i]->name(), areas[i]);
    }
    printf("sum %.2f\n", sum(areas));
    local();
    local();
    for (Shape *shape : shapes)
        delete shape;
    int *many = new int[100]();
    printf("%d\n", many[99]);
    delete[] many;
    return 0;
}
