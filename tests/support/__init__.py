"""What the tests share: how they tell cases, runs of the program, and the schema files and buffers that it is given."""
