// The header as C++ sees it: it compiles without a warning, and each of the six calls has its type and a name that C++ does not change.
#include "cart.h"

static_assert(sizeof(cart_compiled) == 4 * sizeof(size_t), "four numbers");
static_assert(sizeof(cart_table) == 3 * sizeof(size_t) + CART_NAMES, "three numbers and the orders");
static_assert(sizeof(cart_live) == 2 * sizeof(size_t) + CART_NAMES, "two numbers and the orders");

typedef cart_compiled Compile(const uint8_t *, size_t, uint8_t *, size_t, uint8_t *, size_t);

extern Compile *const compile_basic = cart_compile_basic;
extern Compile *const compile_adaptive = cart_compile_adaptive;
extern cart_table (*const table_start)(const uint8_t *, size_t) = cart_table_start;
extern cart_table (*const table_step)(const uint8_t *, size_t, size_t, uint8_t) = cart_table_step;
extern cart_live (*const live_start)(const uint8_t *, size_t, uint8_t *, size_t) = cart_live_start;
extern cart_live (*const live_step)(const uint8_t *, size_t, uint8_t *, size_t, uint8_t) = cart_live_step;
