graph [ router [ penalty 0 buffer [ ] ] ]
