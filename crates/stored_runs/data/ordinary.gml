Creator "yFiles"
Version "2.22"
graph [
 hierarchic 1
 directed 1
 node [ id 0 label "A"
  graphics [ x 0.0 y 0.12345678901234 w 20.0 h 20.0 type "rectangle" fill "#FFCC00" ]
  LabelGraphics [ text "A" fontSize 12 ] ]
 node [ id 1 label "B" graphics [ x 100.00000000000001 y 0.12345678901234 w 20.0 h 20.0 ] ]
 node [ id 2 label "G" isGroup 1 graphics [ x 50.0 y 0.0 w 200.0 h 100.0 ] ]
 edge [ source 0 target 1
  graphics [ fill "#000000" Line [ point [ x 0.0 y 0.0 ] point [ x 50.0 y 40.0 ] point [ x 100.0 y 0.0 ] ] targetArrow "standard" ] ]
]
