// Linked to a proved program, this counts the calls of memcpy, memmove and memset of 1,500 bytes and more, and tells on
// standard error at the end how many they were and of how many bytes. The compiler writes small copies out in place; those
// of a state it leaves to these functions.
typedef unsigned long size;

long write(int file, const void *bytes, size count);

static size calls, bytes;

static void note(size count) {
    if (count >= 1500) {
        calls++;
        bytes += count;
    }
}

// One instruction each: a loop in C would be turned to a call of the function that it stands in.
static void forward(void *to, const void *from, size count) {
    __asm__ volatile("rep movsb" : "+D"(to), "+S"(from), "+c"(count) : : "memory");
}

static void backward(void *to, const void *from, size count) {
    to = (char *)to + count - 1;
    from = (const char *)from + count - 1;
    __asm__ volatile("std; rep movsb; cld" : "+D"(to), "+S"(from), "+c"(count) : : "memory");
}

void *memcpy(void *to, const void *from, size count) {
    note(count);
    forward(to, from, count);
    return to;
}

void *memmove(void *to, const void *from, size count) {
    note(count);
    if ((size)to - (size)from >= count) {
        forward(to, from, count);
    } else {
        backward(to, from, count);
    }
    return to;
}

void *memset(void *to, int value, size count) {
    void *at = to;
    note(count);
    __asm__ volatile("rep stosb" : "+D"(at), "+c"(count) : "a"(value) : "memory");
    return to;
}

static void tell(size number, char behind) {
    char text[24];
    int at = 23;
    text[at] = behind;
    do {
        text[--at] = '0' + number % 10;
        number /= 10;
    } while (number > 0);
    write(2, text + at, 24 - at);
}

__attribute__((destructor)) static void end(void) {
    tell(calls, ' ');
    tell(bytes, '\n');
}
