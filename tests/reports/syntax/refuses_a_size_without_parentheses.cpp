int a = 1;
int b = sizeof(a); int c = sizeof a;
