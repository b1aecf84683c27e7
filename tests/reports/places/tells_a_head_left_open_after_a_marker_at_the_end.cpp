namespace a {
  # 9 "other.h" 2