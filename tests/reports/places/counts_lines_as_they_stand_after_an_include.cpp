#include <meta>

@