"""What measures, and what compares with weedle2."""
