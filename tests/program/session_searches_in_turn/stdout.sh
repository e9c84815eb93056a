echo 'place 1000000 of 1000000'
yes 'no hit, place 1000000 of 1000000' | head -n 300000
