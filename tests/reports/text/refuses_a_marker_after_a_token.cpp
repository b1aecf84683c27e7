; # 1 "a.cpp"
