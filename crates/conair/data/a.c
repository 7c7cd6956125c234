int g; int main(void){ g = 2 + 3; printf("%d\n", g); return 0; }
