// (a file of assembly, with which Go takes functions that have no body)
