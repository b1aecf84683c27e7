/* 1
   2
   3 */
constexpr int a = 1;
