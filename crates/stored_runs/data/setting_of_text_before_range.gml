graph [ router [ penalty "a" buffer 0 ] ]
