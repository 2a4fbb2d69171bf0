# fish completion for impose-pdf.
source (status dirname)/impose.fish
