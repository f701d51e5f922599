int main(void){int z;z=0;return 1/z;}
