Location::caller()
