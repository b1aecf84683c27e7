int é; /* € 😀 */ char 名 = 'a'; int b c;
