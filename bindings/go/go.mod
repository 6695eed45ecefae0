module kapi.example/kapi

go 1.19
