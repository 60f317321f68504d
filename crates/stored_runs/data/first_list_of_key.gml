graph 3 graph [ node [ id 1 ] ] graph [ ]
