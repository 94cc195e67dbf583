// What two objects have in common: a template with a static variable, a variable that is made when it is first used.
extern "C" int twice(int x);

template <int N> struct Table {
    int rows[N];
    static int reads;
    int at(int k) const { reads++; return rows[k]; }
};
template <int N> int Table<N>::reads = N;

struct Count { int value; explicit Count(int x) : value(twice(x)) {} };

inline Count &here()
{
    static Count count(4);
    return count;
}
