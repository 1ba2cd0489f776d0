(dynamic depth)
