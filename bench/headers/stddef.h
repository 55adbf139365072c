// What the benchmark uses of the header, for the kit's compiler, which has none.
typedef __SIZE_TYPE__ size_t;
