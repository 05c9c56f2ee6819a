// The classes of characters, which <string> and others of C++20 name, in place of glibc's.
namespace std {

struct ctype_base {
    typedef const int *__to_type;
    typedef unsigned short mask;
    static const mask upper = 1, lower = 2, alpha = 4, digit = 8, xdigit = 16, space = 32, print = 64, punct = 128, cntrl = 256;
    static const mask blank = 512, alnum = alpha | digit, graph = alnum | punct;
};

}
