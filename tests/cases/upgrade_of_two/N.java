class N { }
