(dynamic foo)
