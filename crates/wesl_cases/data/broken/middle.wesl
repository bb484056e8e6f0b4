import package::values::two;
