module ristulva

go 1.19
