// C++ without its library: classes, templates, lambdas, globals with constructors, local statics that
// threads come to at the same time, new and delete, and threads by pthread.h.
#include <new>
#include <pthread.h>
#include <stdio.h>
#include <stdlib.h>

static unsigned made, gone;

struct Shape {
    virtual int area() const = 0;
    virtual ~Shape()
    {
        gone += 1;
    }
};

struct Square : Shape {
    int side;
    explicit Square(int side) : side(side)
    {
    }
    int area() const override
    {
        return side * side;
    }
};

struct Box : Shape {
    int width, height;
    Box(int width, int height) : width(width), height(height)
    {
    }
    int area() const override
    {
        return width * height;
    }
};

struct Counted {
    int value;
    Counted() : value(41)
    {
        value += 1;
        __atomic_fetch_add(&made, 1, __ATOMIC_RELAXED);
    }
    ~Counted()
    {
        printf("%d goes\n", value);
    }
};

static Counted global;

static int once()
{
    static Counted local;
    return local.value;
}

template <class Function> static int twice(Function function)
{
    return function(1) + function(2);
}

struct alignas(128) Aligned {
    char bytes[128];
};

static void *work(void *)
{
    return reinterpret_cast<void *>(once());
}

int main()
{
    Shape *shapes[] = {new Square(5), new Box(3, 4)};
    int total = 0;
    for (auto *shape : shapes)
        total += shape->area();
    for (auto *shape : shapes)
        delete shape;
    pthread_t threads[6];
    int sum = 0;
    for (auto &thread : threads)
        pthread_create(&thread, nullptr, work, nullptr);
    for (auto thread : threads) {
        void *given;
        pthread_join(thread, &given);
        sum += reinterpret_cast<int>(given);
    }
    auto *aligned = new Aligned;
    auto *numbers = new (std::nothrow) int[10]{1, 2, 3};
    alignas(Square) char room[sizeof(Square)];
    auto *placed = new (room) Square(3);
    printf("areas %d, gone %u, lambda %d\n", total, gone, twice([&](int k) { return k * total; }));
    printf("threads %d, made %u, aligned %u\n", sum, made,
           static_cast<unsigned>(reinterpret_cast<unsigned long>(aligned) % 128));
    printf("numbers %d, placed %d\n", numbers[2], placed->area());
    delete aligned;
    delete[] numbers;
    placed->~Square();
    return 0;
}
