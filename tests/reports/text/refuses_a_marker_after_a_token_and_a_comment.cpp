; /* one */ # 1 "a.cpp"
