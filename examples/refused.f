      I = 1
      X = I + 1
      PRINT *, X
      END
