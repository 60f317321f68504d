graph [ node [ id 1234567890123456789 ] ]
