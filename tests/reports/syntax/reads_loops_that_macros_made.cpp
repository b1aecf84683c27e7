# 0 "sum.cpp"
# 0 "<built-in>"
# 0 "<command-line>"
# 1 "/usr/include/stdc-predef.h" 1 3 4
# 0 "<command-line>" 2
# 1 "sum.cpp"
# 1 "sizes.h" 1







constexpr int width = 80;
constexpr int height = 25;
# 2 "sum.cpp" 2




static int values[(80 * 25)] = { 3, 1, 2, };

int sum(const int* begin, int count)
{
  int total = 0;
  for (int i = 0; i < count; ++i)
    total += ((begin[i]) > (0) ? (begin[i]) : (0));
  while (total > 1000)
    {
      if (total % 2 == 0)
        total /= 2;
      else
        break;
    }
  return total;
}

void sort()
{
    for (unsigned long i = 0; i + 1 < (sizeof(values) / sizeof(values[0])); i++)
        for (unsigned long j = 0; j + 1 < (sizeof(values) / sizeof(values[0])) - i; j++)
            if (values[j] > values[j + 1])
                { int swap_tmp = values[j]; values[j] = values[j + 1]; values[j + 1] = swap_tmp; }
}
