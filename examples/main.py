apples = 3
pears = 2 * apples + 1
print(apples * pears - -4)
apples = apples + 2147483647
print(apples)
print(1 +
  2 * 3)
while pears > 0:
  if pears == 4:
    print(apples)
  else:
    print(pears)
  pears = pears - 3
