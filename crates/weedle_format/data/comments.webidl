
// Nothing is declared yet.

  /* Nor here. */ 
