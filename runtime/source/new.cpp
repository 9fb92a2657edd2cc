// new and delete of C++, by malloc.
#include <malloc.h>
#include <new>
#include <stdlib.h>

extern "C" [[noreturn]] void __shasta_fail(const char *why);

const std::nothrow_t std::nothrow{};

static void *room(std::size_t bytes, std::size_t multiple)
{
    void *block = memalign(multiple, bytes != 0 ? bytes : 1);
    if (block == nullptr)
        __shasta_fail("shasta: no memory for new: -Wl,--defsym=__heap_size=BYTES gives more\n");
    return block;
}

void *operator new(std::size_t bytes)
{
    return room(bytes, 16);
}

void *operator new[](std::size_t bytes)
{
    return room(bytes, 16);
}

void *operator new(std::size_t bytes, const std::nothrow_t &) noexcept
{
    return malloc(bytes != 0 ? bytes : 1);
}

void *operator new[](std::size_t bytes, const std::nothrow_t &) noexcept
{
    return malloc(bytes != 0 ? bytes : 1);
}

void *operator new(std::size_t bytes, std::align_val_t multiple)
{
    return room(bytes, static_cast<std::size_t>(multiple));
}

void *operator new[](std::size_t bytes, std::align_val_t multiple)
{
    return room(bytes, static_cast<std::size_t>(multiple));
}

void operator delete(void *block) noexcept
{
    free(block);
}

void operator delete[](void *block) noexcept
{
    free(block);
}

void operator delete(void *block, std::size_t) noexcept
{
    free(block);
}

void operator delete[](void *block, std::size_t) noexcept
{
    free(block);
}

void operator delete(void *block, std::align_val_t) noexcept
{
    free(block);
}

void operator delete[](void *block, std::align_val_t) noexcept
{
    free(block);
}

void operator delete(void *block, std::size_t, std::align_val_t) noexcept
{
    free(block);
}

void operator delete[](void *block, std::size_t, std::align_val_t) noexcept
{
    free(block);
}
