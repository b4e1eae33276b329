"""Finds the least makespan of a small shop, and checks its certificate."""

from flowshop import Shop

shop = Shop.from_machines([[4, 0, 0], [0, 8, 2], [4, 0, 1]])  # three machines, each with the times of three jobs
found = shop.solve()
checked = shop.check(found)
print(f"least makespan {checked.lower}:", *checked.sequence)
