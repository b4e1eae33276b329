"""From a table to a certificate, a timetable and a picture, which are written to files."""

from flowshop import Shop

times = [[4, 0, 4], [0, 8, 0], [0, 2, 1]]  # a row for each job, a column for each machine
shop = Shop.from_jobs(times, job_names=["Shelf", "Door", "Table"], machine_names=["Cut", "Weld", "Paint"])
certificate = shop.certify()
print(shop.check(certificate), certificate.names)
certificate.save("shop.certificate")
shop.gantt(certificate).save("shop.svg")
