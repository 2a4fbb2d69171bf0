"""Of checks/impose-pdf and checks/pdf-pictures: PDFs that are made, sheets that are wanted, what is shown."""
