
"b\q
