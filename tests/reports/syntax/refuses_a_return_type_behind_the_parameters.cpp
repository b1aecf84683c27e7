int f(); auto g() -> int;
